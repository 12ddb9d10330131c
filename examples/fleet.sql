-- Tables for what `zvt report --json` writes of traces DAY/SHOP/TILL.trace below a folder. docs/FLEETS.md has queries.
-- A line of JSON is a row of `line`. The views divide the name of its file.
CREATE TABLE line (json TEXT NOT NULL);

CREATE VIEW named AS
    SELECT json, '[' || replace(json_quote(json ->> '$.file'), '/', '","') || ']' AS path FROM line
    WHERE json ->> '$.file' LIKE '%.trace';

CREATE VIEW placed AS
    SELECT json, path ->> '$[#-3]' AS day, path ->> '$[#-2]' AS shop, replace(path ->> '$[#-1]', '.trace', '') AS till FROM named;

CREATE VIEW payment AS
    SELECT day, shop, till, json ->> '$.payment.amount' AS amount, json ->> '$.payment.outcome' AS outcome,
        json ->> '$.payment.cause' AS cause, json ->> '$.payment.trace' AS number, json ->> '$.payment.receipt' AS receipt,
        json -> '$.payment.reversed_by' IS NOT NULL AS reversed FROM placed WHERE json -> '$.payment' IS NOT NULL;

CREATE VIEW booked AS
    SELECT day, shop, till, amount, number, receipt, reversed FROM payment WHERE outcome = 'paid';

CREATE VIEW unclear AS
    SELECT day, shop, till, amount, cause FROM payment WHERE outcome = 'unclear';

CREATE VIEW reported AS
    SELECT day, shop, till, json ->> '$.summary.net' AS net, json ->> '$.summary.total' AS total,
        json ->> '$.summary.messages' AS messages, json ->> '$.summary.bad' AS bad
    FROM placed WHERE json -> '$.summary' IS NOT NULL;
