"""Stored chains rewritten by a program, cleaned or in the other form, for tools/chain: what it wrote, and refusals in words."""
import re

from command import LOST, REFUSED, Stop, output
from shares_view import names_for, reason
from stored_chain import Refused, line, read_form

REFUSAL = re.compile(rb"refused( \d+){3}\n")


def chain_of(data, path, names_from=None):
    """The form and the rows of a stored chain. A refusal ends the tool, in words, with the names of a text where there can be any."""
    try:
        return read_form(data)
    except Refused as refused:
        names = names_for(data, path, names_from) if names_from and refused.number == 14 else None
        raise Stop(f"{path}: {refused}: {reason(refused.number, refused.places, data, names)}", REFUSED) from refused


def rewritten(verb, program, data, path, zeros=False):
    """What a program writes for a stored chain, with form and rows before and after. Where the bytes are refused, by the rules without 14
    if there may be zeros, that line is due, and ends the tool in words."""
    result = output(program, data, f"tools/chain {verb}")
    try:
        before = read_form(data, zeros)
    except Refused as refused:
        if result != line(refused):
            raise Stop(f"{program} wrote {shown(result)} where {refused} is due", LOST) from refused
        raise Stop(f"{path}: {refused}: {reason(refused.number, refused.places, data)}", REFUSED) from refused
    if REFUSAL.fullmatch(result):
        raise Stop(f"{program} wrote a refusal that cannot be: {result.decode('ascii').strip()}", LOST)
    try:
        return result, before, read_form(result)
    except Refused as refused:
        raise Stop(f"{program} wrote no stored chain: {refused}", LOST) from refused


def shown(result):
    return result.decode("ascii").strip() if REFUSAL.fullmatch(result) else f"{len(result)} bytes"


def cleaned_file(program, data, path):
    """The file that the cleaning program writes, its form and rows, and how many entries of rate 0 it has left out."""
    result, (form, rows), after = rewritten("clean", program, data, path, zeros=True)
    rest = [[(j, rate) for j, rate in row if rate > 0] for row in rows]
    if after != (form, rest):
        raise Stop(f"{program} wrote {len(result)} bytes for {len(data)}, which are not that chain without its entries of rate 0, in its form", LOST)
    return result, form, rest, sum(map(len, rows)) - sum(map(len, rest))


def converted_file(program, data, path):
    """The file that the converting program writes, its form and rows."""
    result, (form, rows), after = rewritten("convert", program, data, path)
    if after[0] == form:
        raise Stop(f"{program} wrote form {form} again", LOST)
    if after[1] != rows:
        raise Stop(f"{program} wrote another chain", LOST)
    return result, *after
