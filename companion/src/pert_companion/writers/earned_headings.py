"""The headings of earned value, which text, CSV and workbooks have in common."""

PERFORMANCE = ("PV", "EV", "AC", "SV", "CV")
"""The amounts of `Figures.performance`."""
AMOUNTS = ("BAC", *PERFORMANCE)
"""The amounts of `Figures.amounts`."""
RATIOS = ("SPI", "CPI")
FIGURES = (*AMOUNTS, *RATIOS, "EAC", "VAC", "TCPI")
LINE = ("Code", "Title", "Level", "Manager", "Scope")
LATEST = "Latest estimate"
LATEST_VARIANCE = "BAC less latest estimate"
TIMES = ("Earned schedule", "Actual time", "SV(t)", "SPI(t)")
"""Working days and their ratio, of the project and of totals alone."""
MONTHS = ("Account", "Close", "PV", "EV", "AC", "Reported PV", "Reported EV")
VARIANCES = ("Code", "Title", "Manager", "Figure", "Amount", "Percent", "Cause", "Action")
