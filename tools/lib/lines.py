"""Lines of listings: labels with one blank between two, and how they are ordered."""


def order(s):
    return (len(s), [k.encode() for k in s])


def line(s):
    return " ".join(s) or "<empty>"


def observed_of(run, strong):
    return run if strong else tuple(k for k in run if k != "i")


def labels_of(text):
    return () if text == "<empty>" else tuple(text.split(" "))
