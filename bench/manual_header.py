"""What the manual page ftl(3) has of include/ftl.h: the synopsis, the head's text, each call, each structure and each answer."""

import re
import textwrap


def comment_lines(comment):
    """The lines of a comment of C, with no marks of it."""
    inner = re.sub(r"^/\*|\*/$", "", comment.strip())
    return [re.sub(r"^ ?\*? ?", "", it) if at else it.strip() for at, it in enumerate(inner.splitlines())]


def paragraphs(comment):
    """A comment as Markdown: what stands further in is a block of code."""
    out, code = [], False
    for line in comment_lines(comment):
        inner = line.startswith("  ")
        if inner != code and (inner or line.strip()):
            out.append("\n```" if inner else "```\n")
            code = inner
        out.append(line[2:] if inner else line.strip())
    return "\n".join(out + ["```"] * code)


def calls_of(header):
    """The comment and the prototype of each function that a program calls."""
    found = re.findall(r"(/\*(?:(?!\*/).)*?\*/)\nstatic inline ([^{]+?) *\{", header, re.S)
    return [(comment, " ".join(proto.split()) + ";") for comment, proto in found]


def structures_of(header):
    """The comment, the name and the text of each structure that a call takes."""
    return re.findall(r"(/\*(?:(?!\*/).)*?\*/)\nstruct (ftl_\w+) (\{.*?\n\});", header, re.S)


def answers_of(header):
    """Each answer with its number and its text, under what it is an answer of."""
    body = re.search(r"enum ftl_answer \{\n(.*?)\n\};", header, re.S).group(1)
    for line in body.splitlines():
        group = re.match(r"\s*/\* (.*) \*/$", line)
        answer = re.match(r"\s*(FTL_\w+) = (\d+),?\s*(?:/\* (.*) \*/)?$", line)
        if group:
            yield None, None, group.group(1)
        elif answer:
            yield answer.group(1), answer.group(2), answer.group(3) or "it was done"


def synopsis(header, plain):
    heap = re.findall(r"^(?:struct rattle_tried|void) rattle_\w+\(.*\);$", header, re.M)
    wrapped = [textwrap.wrap(it, 76, subsequent_indent="    ") for it in [proto for _, proto in calls_of(header)] + heap]
    lines = ["#include <ftl.h>", "", *[line for it in wrapped for line in it], "", "cc file.c $(pkg-config --cflags --libs ftl)"]
    return [".nf", *[f".B {plain(it)}" if it else "\\&" for it in lines], ".fi"]


def sections(header, plain, wrapped, body_of):
    """The roff of what the header says, for the sections DESCRIPTION to STRUCTURES."""
    first = header[: header.index("*/") + 2]
    body = body_of(paragraphs(first))
    out = [".SH DESCRIPTION", *(body[1:] if body[:1] == [".PP"] else body), ".SH CALLS"]
    for comment, proto in calls_of(header):
        out += [".TP", f".B {plain(proto)}", *wrapped(" ".join(comment_lines(comment)))]
    heap = re.search(r"(/\* The heap, which you define.*?\*/)", header, re.S)
    out += [".SH HEAP", *wrapped(" ".join(comment_lines(heap.group(1))))]
    out += [".SH ANSWERS"]
    for name, number, said in answers_of(header):
        out += [".PP", *wrapped(said[0].upper() + said[1:] + ":")] if name is None else [".TP", f".B {plain(name)} {number}", *wrapped(said)]
    out += [".SH STRUCTURES"]
    for comment, name, text in structures_of(header):
        shown = [f"struct {name} " + text.splitlines()[0], *text.splitlines()[1:-1], "};"]
        out += [f".SS struct {plain(name)}", *wrapped(" ".join(comment_lines(comment))), *body_of("```\n" + "\n".join(shown) + "\n```")]
    return out
