"""Reads XML a piece at a time, in as much memory as a piece needs. Expat expands no entity of another file, and refuses a text that grows without end."""
import xml.etree.ElementTree as tree

import convert_files
from convert_export import refused


def local(element):
    """The name of an element without its namespace."""
    return element.tag.rpartition("}")[2]


def child(element, name):
    return next((each for each in element if local(each) == name), None)


def children(element, name):
    return [each for each in element if local(each) == name]


def text_of(element, name):
    """The text of the child with this name, or None."""
    found = child(element, name)
    return None if found is None or found.text is None else found.text.strip()


def whole(source):
    """The root of a small file, with everything in it."""
    try:
        return tree.fromstring(source.read())
    except tree.ParseError as fault:
        raise no_xml(source, fault) from None


def no_xml(source, fault):
    return refused(source, f"not XML, or truncated: {convert_files.first_line(fault)}")


def pieces(source, names):
    """Yields the root as soon as it begins, and then each child with one of these names when it has ended. Each is dropped when the next is asked for."""
    with source.opened() as stream:
        try:
            root, depth = None, 0
            for event, element in tree.iterparse(stream, ("start", "end")):
                depth += 1 if event == "start" else -1
                if root is None:
                    root = element
                    yield root
                elif event == "end" and depth == 1:
                    if local(element) in names:
                        yield element
                    root.clear()
        except tree.ParseError as fault:
            raise no_xml(source, fault) from None
