"""Why there is no connection to a broker: each reason is told apart, with what to do, and each change of it once."""
from __future__ import annotations

import os
import shutil
import socket
import ssl
import tempfile
import threading
import unittest
from unittest.mock import patch

from broker import MISSING, Broker, Login, free_port
from programs import wait_until

if not MISSING:
    from escrow_carrier import Mqtt


@unittest.skipIf(MISSING, MISSING)
class FaultsTest(unittest.TestCase):
    """A medium on its own, over mosquitto or what else listens."""

    def setUp(self) -> None:
        folder = tempfile.TemporaryDirectory()
        self.addCleanup(folder.cleanup)
        self.folder = folder.name

    def broker(self, name: str = "broker", logins: list[Login] | None = None, is_secret: bool = False) -> Broker:
        broker = Broker(os.path.join(self.folder, name), logins, is_secret)
        self.addCleanup(broker.stop)
        return broker

    def opened(self, medium: Mqtt) -> Mqtt:
        medium.open("one", ["a"], lambda _topic, _payload: None, lambda: None)
        self.addCleanup(medium.close)
        return medium

    def fault(self, medium: Mqtt) -> str:
        """Why it doesn't connect, as it is told and logged, without the address in front."""
        with self.assertLogs("escrow.carrier", "WARNING") as logs:
            self.opened(medium)
            wait_until(lambda: medium.last_fault)
        self.assertEqual([it.getMessage() for it in logs.records], [medium.last_fault])
        self.assertFalse(medium.is_connected)
        host, port, fault = medium.last_fault.split(":", 2)
        self.assertEqual((host, int(port)), medium._address[:2])
        return fault.strip()

    def test_no_broker_and_no_host(self) -> None:
        self.assertEqual(self.fault(Mqtt(port=free_port())), "no broker listens there (Connection refused): start it, "
                         "or look at the host and the port")
        for host in ("nowhere.invalid", "no..name"):
            self.assertRegex(self.fault(Mqtt(host)), "^the host isn't found [(].*[)]: look at its name, and at the")

    def test_a_login_that_is_refused(self) -> None:
        broker = self.broker(logins=[Login("site0", "word0", ["topic read #"])])
        medium = Mqtt(port=broker.port, user="site0", password="guessed")
        self.assertRegex(self.fault(medium), "^the broker refuses the login [(].*not authorised.*[)]: look at the user "
                         "and the password here")
        self.assertNotEqual(medium.last_refusal, "")

    @unittest.skipUnless(shutil.which("openssl"), "openssl isn't installed")
    def test_tls(self) -> None:
        broker, plain = self.broker(is_secret=True), self.broker("plain")
        other = self.broker("other", is_secret=True).certificate
        self.assertRegex(self.fault(Mqtt("localhost", broker.port, ca=other)),
                         "^TLS: the broker's certificate isn't trusted [(]self.signed certificate[)]: name by `ca` the")
        self.assertRegex(self.fault(Mqtt("127.0.0.1", broker.port, ca=broker.certificate)),
                         "^TLS: the broker's certificate isn't for 127.0.0.1 [(]IP address mismatch.*[)]: connect by a")
        self.assertRegex(self.fault(Mqtt("localhost", plain.port, ca=broker.certificate)),
                         "^TLS: no connection comes about [(].+[)]: look whether the broker has TLS on this port")
        self.assertRegex(self.fault(Mqtt("localhost", broker.port)),
                         "^the broker ended the connection before the login: where it wants TLS on this port, name its")
        good = self.opened(Mqtt("localhost", broker.port, ca=broker.certificate))
        wait_until(lambda: good.is_connected)
        self.assertEqual((good.last_fault, good.last_refusal), ("", ""))

    def test_a_certificate_that_is_not_valid_now(self) -> None:
        fault = ssl.SSLCertVerificationError(1, "certificate verify failed")
        for code, told in (9, "certificate is not yet valid"), (10, "certificate has expired"):
            fault.verify_code, fault.verify_message = code, told
            with self.subTest(told), patch("paho.mqtt.client.Client.reconnect", side_effect=fault):
                self.assertEqual(self.fault(Mqtt()), f"TLS: the broker's certificate isn't valid now "
                                 f"({told}): make a new one, or set the clock")

    def test_a_file_of_certificates_that_is_none(self) -> None:
        path = os.path.join(self.folder, "ca.pem")
        with self.assertRaises(FileNotFoundError) as missing:
            Mqtt(ca=path)
        self.assertEqual(missing.exception.filename, path)
        with open(path, "w", encoding="ascii") as file:
            file.write("no certificate\n")
        with self.assertRaises(ValueError) as none:
            Mqtt(ca=path)
        self.assertIn(f"{path}: no certificate is in it", str(none.exception))

    def test_each_change_is_told_once(self) -> None:
        broker = self.broker()
        medium = Mqtt(port=broker.port)
        at = f"127.0.0.1:{broker.port}: "
        with self.assertLogs("escrow.carrier", "INFO") as logs:
            self.opened(medium)
            wait_until(lambda: medium.is_connected)
            broker.stop()
            wait_until(lambda: "no broker listens" in medium.last_fault)
            threading.Event().wait(2.5)                 # it tries again meanwhile
            broker.start()
            wait_until(lambda: medium.is_connected and medium.last_fault == "")
            medium.close()
        self.assertEqual([it.getMessage() for it in logs.records], [
            f"{at}connected",
            f"{at}the connection was lost: it is made again as soon as the broker is there",
            f"{at}no broker listens there (Connection refused): start it, or look at the host and the port",
            f"{at}connected"])
        self.assertEqual(medium.last_fault, "")

    def test_something_else_that_listens(self) -> None:
        with socket.create_server(("127.0.0.1", 0)) as listener:
            def hang_up() -> None:
                listener.accept()[0].close()
            threading.Thread(target=hang_up, daemon=True).start()
            medium = Mqtt(port=listener.getsockname()[1])
            self.assertIn("else no MQTT broker listens there", self.fault(medium))


if __name__ == "__main__":
    unittest.main()
