"""The content of the name servers: the zones `example` and `test`, with a record of each type that
servers know."""
import pathlib
import tomllib

LIFETIME = 300
TABLE = tomllib.loads(pathlib.Path(__file__).with_name("zones.toml").read_text(encoding="utf-8"))
TYPES = TABLE["types"]

EXAMPLE = [
    *TABLE["example"],
    ("big.example.", "TXT", " ".join(f'"{chr(97 + n) * 255}"' for n in range(16))),
    *((f"type-{kind.lower()}.example.", kind, data)
      for kind, each in TYPES.items() for data in each),
    # Nine aliases lead from the first name; a forwarder follows eight.
    *((f"alias{n}.example.", "CNAME", f"alias{n + 1}.example.") for n in range(1, 9)),
    *((f"n{n}.example.", "A", f"198.51.100.{n}") for n in range(100)),
]
ZONES = {"example": EXAMPLE, "test": TABLE["test"]}


def master_file(zone, without):
    """The zone's text, without these types."""
    return "".join(f"{name} {LIFETIME} IN {kind} {data}\n"
                   for name, kind, data in ZONES[zone] if kind not in without)
