"""Random configurations, most of them accepted."""
import pathlib
import tomllib

ODD = tomllib.loads(pathlib.Path(__file__).with_name("odd.toml").read_text(encoding="utf-8"))


def servers(random, first):
    """A group of one to eight servers, at times with one of them twice."""
    count = random.choice((1, 1, 2, 2, 3, 8))
    group = [f"192.0.2.{first + at}:{random.choice((53, 53, 5353))}" for at in range(count)]
    if count > 1 and random.random() < 0.2:
        group[random.randrange(count)] = random.choice(group)
    return group


def route(random, suffix, first, may_deny):
    lines = ["[[route]]", f'suffix = "{suffix}"']
    if may_deny and random.random() < 0.25:
        return [*lines, "deny = true"]
    if may_deny and random.random() < 0.1:
        lines.append("deny = false")
    peers = ", ".join(f'"{peer}"' for peer in servers(random, first))
    return [*lines, f"servers = [{peers}]"]


def limits(random, version, theme):
    """The lines of the limits, some of them small."""
    chosen = {name: random.choice(values) for name, values in ODD["limits"].items()
              if random.random() < (0.5 if name in ("tries", "stale_s") else 0.15)}
    if theme == "pressed":
        chosen = {"cache": random.choice((1, 2, 2, 3, 3, 4))}
    if theme == "aged":
        chosen = {"cache": random.choice((2, 3, 4)), "tries": 1, "stale_s": 86_400}
    if theme == "stale":
        chosen |= {"tries": random.choice((1, 1, 2)), "stale_s": random.choice((30, 600, 86_400)),
                   "cache": random.choice((2, 3, 4, 4096))}
    if version == 1:
        chosen.pop("stale_s", None)
    lines = [f"{name} = {value}" for name, value in chosen.items()]
    return ["[limits]", *lines] if lines or random.random() < 0.1 else []


def configuration(random, theme):
    """The text of a configuration, and its suffixes.

    The theme of the script is "pressed" for a small cache, "aged" for one in which entries end,
    "stale" for sets that are answered after they ended, "large" or "any".
    """
    version = 2 if theme in ("aged", "stale") else random.choice((1, 2))
    counts = (0, 0, 1) if theme == "aged" else (0, 0, 1, 2, 3, 5, 10)
    others = random.sample(ODD["suffixes"], random.choice(counts))
    others = [each for at, each in enumerate(others)
              if each.lower().strip(".") not in [one.lower().strip(".") for one in others[:at]]]
    suffixes = others if others and random.random() < 0.15 else [".", *others]
    random.shuffle(suffixes)
    lines = [f"version = {version}"]
    if random.random() < 0.1:
        lines.append('listen = "127.0.0.1:5353"')
    tables = [limits(random, version, theme)]
    tables += [route(random, suffix, 1 + 10 * at, version == 2 and suffix != ".")
               for at, suffix in enumerate(suffixes)]
    if random.random() < 0.5:
        tables.append(tables.pop(0))
    lines += [line for table in tables for line in table]
    return "".join(f"{line}\n" for line in lines), suffixes


def changed(random, text):
    """A configuration with one or two changes, most of which are faults."""
    lines = text.split("\n")[:-1]
    for _ in range(random.choice((1, 1, 2))):
        at = random.randrange(len(lines))
        key, equals, _ = lines[at].partition(" = ")
        how = random.randrange(5)
        if how < 2 and equals:
            lines[at] = f"{key} = {random.choice(ODD['strange'])}"
        elif how == 2:
            del lines[at]
        elif how == 3:
            lines.insert(random.randrange(len(lines) + 1), random.choice(lines))
        else:
            lines.insert(random.randrange(len(lines) + 1), random.choice(ODD["lines"]))
        if not lines:
            return ""
    if random.random() < 0.03:
        lines += ['[[route]]\nsuffix = "r%d"\nservers = ["192.0.2.1:53"]' % at for at in range(64)]
    return "".join(f"{line}\n" for line in lines)
