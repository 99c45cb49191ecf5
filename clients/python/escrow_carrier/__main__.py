"""Prints mosquitto's access list for the sites in these folders: what the broker has to let each do, and nothing
else. Site 3 logs in as `site3`.

    python3 -m escrow_carrier shop0 shop1 shop2 > access

Ends with status 2 where no folder is named, or a flag that it hasn't got, with 3 where one isn't a site's, and with 5 where
one can't be read; then it prints one line, on standard error, and no list. A folder whose name begins with `-` is given as
`./-..`."""
import sys

from escrow import Down
from escrow.schema import identity
from escrow.streams import refuse_streams

from .messages import Topics


def main(folders: list[str]) -> int:
    """An entry for each folder. The status."""
    refuse_streams("escrow_carrier")
    if folders and folders[0] in ("-h", "--help"):
        print(__doc__)
        return 0
    for word in folders:
        if word.startswith("-"):
            print(f"escrow_carrier: {word} is no flag, and a folder of that name is ./{word}", file=sys.stderr)
            return 2
    if not folders:
        print("escrow_carrier: name the folders of the sites: python3 -m escrow_carrier FOLDER..", file=sys.stderr)
        return 2
    try:
        entries = [(number, Topics(world, schema).access(number)) for number, world, schema in map(identity, folders)]
    except Down as fault:
        print(f"escrow_carrier: {fault}", file=sys.stderr)
        return fault.status or 3
    for number, lines in entries:
        print("".join(f"{line}\n" for line in (f"user site{number}", *lines)))
    return 0


sys.exit(main(sys.argv[1:]))
