"""A producer of certificates: from a task set and its files to a certificate, by analyses of its own.

It shares no line with the certifier and none with the other scripts. What it has wrong, `crpd check` refuses.
"""
