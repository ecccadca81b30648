"""The tables of a file as an editor's outline has them."""

from __future__ import annotations

from j39plan.editor.documents import Document
from j39plan.editor.protocol import Object
from j39plan.plan.toml_places import Place, table_of

# The kinds of the tables, as the protocol numbers those of programs: what else there is is a property.
KINDS = {"unit": 5, "group": 23, "signal": 8, "text": 15, "flow": 24, "need": 20, "request": 24, "choice": 10, "bus": 2, "gateway": 5, "forward": 24}
OTHER = 7


def title_of(document: Document, place: Place) -> str:
    """What a table is called: by its label, or by what it names."""
    texts, places = document.source.places.texts, document.source.places
    said = {key: texts.get((*place, key), "") for key in ("label", "group", "signal", "from", "to", "unit", "as", "plan")}
    if said["label"]:
        return said["label"]
    if table_of(place) in ("choice", "never"):
        return " or ".join(texts.get(one, "") for one in places.elements((*place, "of"))) or table_of(place)
    if table_of(place) == "need":
        what = " ".join(filter(None, (said["group"], said["signal"])))
        return f"{what} for {said['unit']}" if said["unit"] else what or "need"
    ends = f" from {said['from']}" * bool(said["from"]) + f" to {said['to']}" * bool(said["to"]) + f" as {said['as']}" * bool(said["as"])
    return f"{said['group']}{ends}".strip() or table_of(place)


def symbols_of(document: Document) -> list[Object]:
    """The tables of a file, each with those in it, in the order of the text."""
    found: list[Object] = []
    whole: dict[Place, Object] = {}
    headers = document.source.places.headers
    ends = [begin for begin, _ in headers[1:]] + [len(document.text)]
    for (begin, place), end in zip(headers, ends):
        line = document.lines.position(begin)["line"]
        selected = document.lines.range(begin, max(document.lines.end_of(line), begin))
        last = max(begin + len(document.text[begin:end].rstrip()), document.lines.end_of(line))
        symbol: Object = {"name": title_of(document, place), "detail": table_of(place), "kind": KINDS.get(table_of(place), OTHER),
                  "range": document.lines.range(begin, last), "selectionRange": selected, "children": []}
        around = whole.get(place[:2]) if len(place) > 2 else None
        if around is None:
            found.append(symbol)
        else:
            around["children"].append(symbol)
            around["range"]["end"] = symbol["range"]["end"]
        whole[place] = symbol
    return found
