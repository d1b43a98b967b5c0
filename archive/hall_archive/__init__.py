"""The archive of a packing hall: beside the book when each pack was weighed, who acted and why, and
what the book takes on trust. It writes no book; all but hours, persons, reasons and evidence can be
made anew from the books."""
