"""What `page` and the ladder of `report` are made of."""
