"""A first table: a contact stored and read, how long it is good for, then three calls that are refused.

    make shared && python3 python/first.py
"""
import contacts
from contacts import Mode, Opcode, State

ROWS, VBUCKET, NOW, HOUR, KEY = 4, 3, 1_000_000, 3_600, b"sonar:17"


def main():
    table = bytearray(contacts.size(ROWS))
    contacts.make(table, ROWS, State.ACTIVE, Mode.REVISION, VBUCKET)
    print(f"made: {len(table)} bytes for {ROWS} rows")

    tally = contacts.Tally()
    extras = bytes([0, 0, 0, 7]) + HOUR.to_bytes(4, "big")  # flags 7, one hour
    put = contacts.write_request(Opcode.SET, extras, KEY, b"bearing 143", VBUCKET)
    served = contacts.serve(table, NOW, put, tally)
    print(f"set: status 0x{served.status:02x}, {served.used} bytes used, {len(served.reply)} replied")

    get = contacts.write_request(Opcode.GET, key=KEY, vbucket=VBUCKET)
    served = contacts.serve(table, NOW, get, tally)
    header, body = served.reply[: contacts.FRAME_HEADER], served.reply[contacts.FRAME_HEADER :]
    value = body[header[4] :]  # after the extras
    print(f'get: status 0x{served.status:02x}, value "{value.decode()}"')

    found = contacts.read(table, NOW, KEY)
    numbers = f"flags {found.flags}, expiry {found.expiry}, revision {found.revision}, CAS {found.cas}"
    print(f'read: {numbers}, value "{found.value.decode()}"')
    for when, clock in (("now", NOW), ("an hour later", NOW + HOUR), ("a minute after that", NOW + HOUR + 60)):
        print(f"{when}: {contacts.read(table, clock, KEY).left} seconds left")

    try:
        contacts.serve(table, NOW, get[:-1], tally)
    except contacts.Refused as refused:
        print(f"a byte short: outcome {refused.outcome}, {refused.needed} bytes needed")
    elsewhere = contacts.write_request(Opcode.GET, key=KEY, vbucket=VBUCKET + 1)
    print(f"another vbucket: status 0x{contacts.serve(table, NOW, elsewhere, tally).status:02x}")
    try:
        contacts.write_request(Opcode.GET, vbucket=VBUCKET)
    except contacts.Refused as refused:
        print(f"no key: status 0x{refused.status:02x}, nothing written")

    print(f"tally: {tally.served} served, {tally.refused} refused, {tally.silent} silent")


if __name__ == "__main__":
    main()
