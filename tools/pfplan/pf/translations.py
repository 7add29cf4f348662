"""Whether rules texts have address translation: the one place that says so."""

# pfsrc reads `nat-to` and `rdr-to` under the profile of OpenBSD. Where this is False a rules text is written without
# them, and what is left out is told; a conversion may be asked either way (RuleOptions.translates).
TRANSLATES = True
