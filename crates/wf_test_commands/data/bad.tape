no record
