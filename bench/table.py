"""A table of figures beside those of a peer. A row is what was measured, its unit, our figure, the peer's and who the peer is; the
last two are None where nothing else does the same."""

HEAD = "| What | Unit | Ours | Peer | Ratio |\n|---|---|---|---|---|"


def text(figure):
    return f"{figure:,.0f}" if figure >= 1000 else f"{figure:.1f}" if figure >= 10 else f"{figure:.2f}"


def show(rows):
    """Prints each row as soon as it is measured."""
    print(HEAD, flush=True)
    for what, unit, ours, theirs, peer in rows:
        if ours is None:
            continue
        beside = f"{text(theirs)}, {peer} | {text(ours / theirs)}" if theirs else "|"
        print(f"| {what} | {unit} | {text(ours)} | {beside} |", flush=True)
