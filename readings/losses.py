"""Writes talks/losses.talk: each single loss in a transfer of each kind, counted by the rules as talks.py
reads them.
"""

from readings import END_DATA, talks


PACKET = 8
SET = "09022200010100a0320904000001030102000921100100012234000705810304000a"
NAMES = {"d": "what the host sends is lost", "u": "the answer is lost", "a": "the host's ACK is lost"}

READ = ["8006000100001200"]
ADDRESS = ["0005050000000000"]
CONFIGURATION = ["0005050000000000", "0009010000000000", "8006000100001200"]
REFUSED = ["8200000081000200"]
REFUSED_OUT = ["2109000200000100"]
KINDS = [
    (READ, "a read of 18 bytes", range(5)),
    (ADDRESS, "SET_ADDRESS", range(2)),
    (CONFIGURATION, "SET_CONFIGURATION after SET_ADDRESS, and a read", range(2, 4)),
    (REFUSED, "a refused read", range(2)),
    (REFUSED_OUT, "a refused request with data from the host", range(2)),
]


def reply(result):
    return result if result == "stall" else result.hex() or "done"


with open(f"{END_DATA}/talks/losses.talk", "w") as out:
    print("# Each single loss in a transfer of each kind, with packets of 8 bytes. losses.py has counted them.", file=out)
    print(f"file {talks.descriptor(PACKET).hex()}{SET} -> read\nspeed full -> accepted", file=out)
    for requests, name, places in KINDS:
        for place in places:
            for letter in "dua":
                fates = "." * place + letter
                end, count, results, device = talks.talk(PACKET, requests, 16, fates)
                print(f"\n# {name}, transaction {place + 1}: {NAMES[letter]}\nfates {fates}", file=out)
                for request, result in zip(requests, results):
                    print(f"request {request} -> {reply(result)}", file=out)
                if end != "ended" or len(results) != len(requests):
                    raise SystemExit(f"{name} with {fates}: {end}")
                state = f"address {device.address}, configuration {device.selected}"
                print(f"end -> {count} transactions, {state}", file=out)
