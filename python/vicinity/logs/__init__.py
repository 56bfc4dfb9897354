"""What is said of one log. `rows` has its rows; `findings` what the library says of it; `words`
numbers, masks and lines in words; `headline` the answer in a sentence; `report` and `show` are what
the commands of these names write."""
