"""The report page: templates, scripts and styles, and the records that they show."""
