-- How many entries there are of each item, and how many pieces: sqlite3 orders.db < items.sql
SELECT item.value ->> 1, count(*), sum(pieces.value ->> 1)
FROM entries, json_each(fields) AS item, json_each(fields) AS pieces
WHERE item.value ->> 0 = 'item' AND pieces.value ->> 0 = 'pieces'
GROUP BY 1 ORDER BY 1;
