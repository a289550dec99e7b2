"""All families: importing them enters them into FAMILIES."""
import lists  # noqa: F401
import towers  # noqa: F401
import wide  # noqa: F401
from family import FAMILIES, made, to_line  # noqa: F401
