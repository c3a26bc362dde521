"""The command hocsimbur: arguments, answers as text, files and exit statuses."""
