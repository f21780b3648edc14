"""This package describes chips for models.py, with one module (except common.py) per maker or group of makers.

**The descriptions were written from memory of the datasheets, without a page at hand, and no chip was tried.**
`sources` names the datasheet sections in which to check them. Another revision of a chip may have another SFDP.
"""
from chips import gigadevice, issi, macronix, micron, spansion, various, winbond

ALL = {it.name: it for maker in (winbond, macronix, gigadevice, issi, micron, spansion, various) for it in maker.CHIPS}
