"""What the tables of the page show: the values of a text as they stand, whether or not they are a junction."""
from ..places import PART_KEYS
from ..toml_documents import document_of
from .steps import TOP

LIST_KEYS = {part: keys for part, keys in PART_KEYS.items() if part != TOP}
TOP_KEYS = [key for key in PART_KEYS[TOP] if key not in LIST_KEYS]


def tables(text):
    """The values by part, each as a word; or that the text is no TOML."""
    try:
        document = document_of(text)
        rows = {part: rows_of(document.get(part), keys) for part, keys in LIST_KEYS.items()}
        return {TOP: row_of(document, TOP_KEYS), **rows}
    except ValueError as error:
        return {"unreadable": str(error)}


def rows_of(value, keys):
    return [row_of(table, keys) for table in value] if isinstance(value, list) else []


def row_of(table, keys):
    return {key: str(table[key]) if isinstance(table, dict) and key in table else "" for key in keys}
