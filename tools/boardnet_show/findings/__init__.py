"""A report and copper become findings: opens, shorts, missing points, where they are and what is suggested."""
