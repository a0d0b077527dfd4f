"""Scripts for `replay` that the trials `memory` and `io` run."""

LIBRARY = """op,kind,id,dmap.itemname,daap.songartist,daap.songalbum,com.apple.itunes.mediakind
put,item,1,Hey,Ann,One,1
put,item,2,it's late,Bob,,1
put,item,3,Talk,Cy,Pod,4
put,item,4,Move,Di,Film,32
put,item,5,Quiet,Ed,Two,
put,item,6,Late,ann,two,1
"""


def script(*requests):
    """Returns a script of one connection with the library, a login and these requests."""
    lines = ["open 1 edit"]
    for method, target, body in (("POST", "/edit", LIBRARY), ("GET", "/login", ""), *requests):
        length = f"Content-Length: {len(body)}\\r\\n" if body else ""
        lines.append(f"text 1 {method} {target} HTTP/1.1\\r\\n{length}\\r\\n" + body.replace("\n", "\\n"))
    return ("\n".join(lines) + "\n").encode()


def get(path, parameters=""):
    return "GET", f"{path}?session-id=1{parameters}", ""


ITEMS = get("/databases/1/items", "&meta=all")

# A batch that is refused.
REFUSED_BATCH = script(
    ITEMS,
    ("POST", "/edit", "op,kind,id,daap.songyear\n" + "".join(f"put,item,{key},{'19x' if key == 3 else 1980}\n" for key in range(1, 6))),
    ITEMS,
)

# A list of members, and its change after an item was dropped.
PLAIN_LIST = script(
    ("POST", "/edit", "op,kind,id,dmap.itemname,list,item\nput,list,2,Mix,,\nput,member,10,,2,1\nput,member,11,,2,6\n"
        "put,member,12,,2,1\nput,member,13,,2,99\n"),
    get("/databases/1/containers/2/items", "&meta=dmap.itemname"),
    ("POST", "/edit", "op,kind,id\ndrop,item,1\n"),
    get("/databases/1/containers/2/items", "&meta=dmap.itemname&delta=4"),
)


def is_failed(output, good, line):
    """Whether the output is a prefix of the good one and then the line of a failure."""
    return output.endswith(line) and good.startswith(output[: -len(line)])
