"""Makes an HTML page of logs of tlslog: `python3 -m wispuddera.report LOG.. > report.html`.

That is also the command `tlslog-report`. `report` reads logs, opened in binary, and returns the
page. It needs neither the network nor the library of this package, and its memory is bounded
(docs/REPORT.md).
"""

from .page import report
from .reading import OtherFormat

__all__ = ["OtherFormat", "report"]
