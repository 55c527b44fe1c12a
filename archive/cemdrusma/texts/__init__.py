"""How texts are read: files of a folder, mails of an mbox file or a maildir, rows of a CSV file."""
