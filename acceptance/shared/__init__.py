"""The programs of share/, and the pages that are tried as they stand."""
