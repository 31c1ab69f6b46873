UPDATE Item
SET Name = 'x'
WHERE Id LIKE 1;
