"""Pages of a log and of a collection: web/ draws them, of the objects that are made here."""
