"""Carriers over a real broker: who may write where, and a broker that forgets all. Each number is counted by hand."""
from __future__ import annotations

import shutil
import socket
import tempfile
import threading
import time
import unittest
from typing import Any, Optional

from broker import MISSING, Broker, Login
from test_carrier_sites import PATIENCE, Sites

from escrow import Kind
from escrow_carrier import Policy, Topics, last_mark

if not MISSING:
    import paho.mqtt.client as paho  # type: ignore

    from escrow_carrier import Carrier, Mqtt

PATIENT = Policy(quiet=3_600.0, patience=PATIENCE)


@unittest.skipIf(MISSING, MISSING)
class BrokerTest(Sites):
    """Three sites over mosquitto."""

    def broker(self, logins: Optional[list[Login]] = None, is_secret: bool = False) -> Broker:
        folder = tempfile.TemporaryDirectory()
        self.addCleanup(folder.cleanup)
        broker = Broker(folder.name, logins, is_secret)
        self.addCleanup(broker.stop)
        return broker

    def over(self, broker: Broker, logins: Optional[list[Login]] = None) -> list[Carrier]:
        media = [Mqtt(port=broker.port) for _ in range(3)]
        if logins:
            media = [Mqtt(port=broker.port, user=it.user, password=it.password) for it in logins]
        return self.met([self.carrier(it, PATIENT, 1.0, medium, wait=0.2) for it, medium in enumerate(media)])

    def test_a_broker_that_forgets_all_loses_no_right(self) -> None:
        broker = self.broker()
        carriers = self.over(broker)
        carriers[0].close()
        self.sites[1].give(0, "stock", Kind.LOWER, 3)
        broker.stop()
        self.sites[1].give(0, "stock", Kind.LOWER, 2)
        broker.start()
        self.carrier(0, PATIENT, 1.0, Mqtt(port=broker.port), wait=0.2)
        self.await_it(lambda: self.lower() == [15, 5, 10])

    def test_small_messages_go_out_at_once(self) -> None:
        broker = self.broker()
        medium = Mqtt(port=broker.port)
        self.carrier(0, PATIENT, 1.0, medium, wait=0.0)
        for _ in range(2):                              # at each connection
            self.await_it(lambda: medium.is_connected)
            self.assertTrue(self.is_without_delay(medium))
            broker.stop()
            self.await_it(lambda: not medium.is_connected)
            broker.start()

    def is_without_delay(self, medium: Mqtt) -> bool:
        return bool(medium._client.socket().getsockopt(socket.IPPROTO_TCP, socket.TCP_NODELAY))

    def test_the_end_tells_the_mark_behind_all_else(self) -> None:
        broker, site = self.broker(), self.sites[0]
        carrier = self.carrier(0, PATIENT, 3_600.0, Mqtt(port=broker.port), wait=0.2)
        self.await_it(lambda: carrier.counts.connects == 1)
        time.sleep(0.2)                                 # the medium had time to bring a mark that it keeps
        broker.pause(0.5)
        for _ in range(24):                             # more than are on their way at once
            site.give(1, "stock", Kind.RAISE, 1)
        mark = site.newest_mark()
        carrier.close()
        self.assertEqual(last_mark(site.folder, Mqtt(port=broker.port), 60.0), mark)

    @unittest.skipUnless(shutil.which("openssl"), "openssl isn't installed")
    def test_over_tls(self) -> None:
        broker = self.broker(is_secret=True)
        media = [Mqtt("localhost", broker.port, ca=broker.certificate) for _ in range(3)]
        carriers = self.met([self.carrier(it, PATIENT, 1.0, medium, wait=0.2) for it, medium in enumerate(media)])
        carriers[0].change("stock", -10)
        carriers[0].change("stock", -4)
        self.assertEqual((self.lower(), self.is_without_delay(media[0])), ([1, 5, 10], True))
        plain, stranger = Mqtt(port=broker.port), Mqtt("localhost", broker.port, ca=self.another_certificate())
        for it in (plain, stranger):
            it.open("else", [], lambda _topic, _payload: None, lambda: None)
        time.sleep(1)
        self.assertFalse(plain.is_connected or stranger.is_connected)
        for it in (plain, stranger):
            it.close()

    def another_certificate(self) -> str:
        """Of a broker that isn't this one."""
        return self.broker(is_secret=True).certificate

    def test_each_site_writes_its_own_statements_alone(self) -> None:
        site = self.sites[0]
        topics = Topics(site.world, site.schema)
        logins = [Login(f"site{it}", f"word{it}", topics.access(it)) for it in range(3)]
        broker = self.broker(logins)
        carriers = self.over(broker, logins)
        forged = f"{self.top}/1/given/0/stock/lower"
        self.publish(broker.port, "site2", "word2", forged, "9", 60.0)
        for user, word in (("site1", "guessed"), (None, None)):
            self.publish(broker.port, user, word, forged, "9", 1.0)
        self.publish(broker.port, "site1", "word1", f"{self.top}/1/given/2/stock/lower", "1000000000000000000", 60.0)
        self.await_it(lambda: carriers[2].counts.forged >= 1)
        self.assertEqual((self.lower(), carriers[0].counts.accepted), ([10, 10, 10], 0))
        carriers[0].change("stock", -10)
        carriers[0].change("stock", -4)                 # and what they have to write goes through: site 1 gives 5
        self.assertEqual(self.lower(), [1, 5, 10])
        self.assertEqual(carriers[0].counts.forged, 0)

    def test_who_is_not_let_in_is_told_why(self) -> None:
        broker = self.broker([Login("site0", "word0", ["topic read #"])])
        stranger = Mqtt(port=broker.port, user="site0", password="guessed")
        stranger.open("else", [], lambda _topic, _payload: None, lambda: None)
        self.await_it(lambda: stranger.last_refusal != "")
        self.assertEqual((stranger.last_refusal, stranger.is_connected), ("Connection Refused: not authorised.", False))
        stranger.close()

    def publish(self, port: int, user: Optional[str], word: Optional[str], topic: str, payload: str, seconds: float) -> None:
        """Tells the broker something, in the name of somebody: until it has that, or for so many seconds where it lets nobody in."""
        client: Any = paho.Client("else") if not hasattr(paho, "CallbackAPIVersion") else paho.Client(
            paho.CallbackAPIVersion.VERSION2, "else")
        if user is not None:
            client.username_pw_set(user, word)
        client.connect("127.0.0.1", port)
        has_it = threading.Event()
        client.on_publish = lambda *_: has_it.set()
        client.loop_start()
        time.sleep(0.5)
        client.publish(topic, payload, 1, True)         # it is kept until the connection stands
        self.assertEqual(has_it.wait(seconds), seconds > 1.0)
        client.disconnect()
        client.loop_stop()


if __name__ == "__main__":
    unittest.main()
