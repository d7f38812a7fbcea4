"""Transactions at their limits, and next to them."""

HEAD = ("member 1 honest", "member 9 faulty", "coin g0 alice 10000000", "coin g1 alice 10000000", "coin g2 bob 5")


def text(random, turn):
    """A text of the profile `limits`: some great transactions, voted for, certified by the faulty member, held, seen and executed."""
    lines = [*HEAD]
    for number in range(random.choice((1, 2))):
        make = random.choice((commands, inputs, arguments, size, version, creations))
        lines += [f"tx t{number} alice 0 g{number}@1 {make(random)}", f"vote 0 t{number}", f"fvote 1 t{number}", f"cert t{number} 1", f"send 0 t{number}"]
        lines += [f"order t{number}", "see 0 1"] if random.random() < 0.5 else []
        lines += [f"run 0 {random.choice((1, 4))}"]
    return "".join(f"{line}\n" for line in [*lines, "show 0"]).encode()


def near(random, limit):
    return limit + random.choice((-1, 0, 0, 1, 1))


def commands(random):
    count = near(random, 1024)
    return f"{1000 + 100 * count - random.choice((0, 0, 0, 1))} n:0 " + " ".join(["coin_zero(i0)"] * count)


def inputs(random):
    count = near(random, 256)
    return f"2000 {'n:0 ' * count}coin_zero(i{count - random.choice((1, 1, 1, 0))})"


def arguments(random):
    count = near(random, 512)
    what = random.choice(("split", "vec", "transfer", "counter_new"))
    if what == "split":
        return f"2000 n:1 a:bob split(gas,{','.join(['i0'] * (count - 1))}) transfer({','.join(f'r0.{it}' for it in range(random.choice((3, 511))))},i1)"
    if what == "vec":
        return f"2000 vec(coin,{','.join(['gas'] * count)})"
    words = ",".join(["i0"] * count)
    return f"2000 n:0 {what}({words})"


def size(random):
    """The transaction has 131,072 bytes, or one more or less: what is not in the text of `x:` takes 129 or 142 bytes."""
    if random.random() < 0.3:
        return f"2000 x:{'00' * (near(random, 131_072) - 142)} n:0 coin_zero(i1)"
    return f"1100 x:{'00' * (near(random, 131_072) - 129)} vec(coin)"


def version(random):
    return f"2000 o:g2@{near(random, 4611686018427387902)} freeze(i0)"


def creations(random):
    """Many objects that are created, and frozen or left."""
    count = random.choice((200, 512))
    words = " ".join(f"counter_new(i0) freeze(r{2 * it})" for it in range(count))
    return f"{1000 + 200 * count} n:0 {words}"
