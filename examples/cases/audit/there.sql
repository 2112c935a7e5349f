-- What happened at MariaDB: `export` runs these lines, each in the session of its number and in UTC, on a server of its own.
-- SET timestamp gives a session the dates of the story. A line that begins with a file writes what it selects to that file.
1: CREATE TABLE credit (customer INT PRIMARY KEY, holder VARCHAR(40) NOT NULL, euros INT NOT NULL, row_start TIMESTAMP(6) GENERATED ALWAYS AS ROW START, row_end TIMESTAMP(6) GENERATED ALWAYS AS ROW END, PERIOD FOR SYSTEM_TIME (row_start, row_end)) WITH SYSTEM VERSIONING

-- 5 January: three customers, and how much credit each has.
1: SET timestamp = UNIX_TIMESTAMP('2026-01-05 09:00:00')
1: INSERT INTO credit (customer, holder, euros) VALUES (1001, 'Mills', 5000), (1002, 'O''Hara', 3000), (1003, 'Varga', 8000)

-- 30 March: the clock is an hour fast. Customer 1003 gets 12000; then the clock is set right, and the 12000 become 7000.
1: SET timestamp = UNIX_TIMESTAMP('2026-03-30 10:40:00')
1: UPDATE credit SET euros = 12000 WHERE customer = 1003
1: SET timestamp = UNIX_TIMESTAMP('2026-03-30 09:55:00')
1: UPDATE credit SET euros = 7000 WHERE customer = 1003

-- 31 March: a batch mistypes an amount, and corrects it in the same transaction.
1: SET timestamp = UNIX_TIMESTAMP('2026-03-31 23:50:00')
1: START TRANSACTION
1: UPDATE credit SET euros = 30000 WHERE customer = 1002
1: SET timestamp = UNIX_TIMESTAMP('2026-03-31 23:55:00')
1: UPDATE credit SET euros = 3500 WHERE customer = 1002

-- 1 April, five past midnight: the auditor asks, and takes the first extract. The batch is still open.
2: SELECT customer, holder, euros FROM credit FOR SYSTEM_TIME AS OF TIMESTAMP'2026-03-31 23:59:59' ORDER BY customer
april.csv: SELECT customer, holder, euros, row_start, row_end FROM credit FOR SYSTEM_TIME ALL ORDER BY customer, row_start

-- 1 April, twenty past midnight: the batch commits.
1: SET timestamp = UNIX_TIMESTAMP('2026-04-01 00:20:00')
1: COMMIT

-- 1 July: the auditor asks the same again, about two instants, and takes the second extract.
2: SELECT customer, holder, euros FROM credit FOR SYSTEM_TIME AS OF TIMESTAMP'2026-03-31 23:59:59' ORDER BY customer
2: SELECT customer, holder, euros FROM credit FOR SYSTEM_TIME AS OF TIMESTAMP'2026-03-30 10:00:00' ORDER BY customer, euros
july.csv: SELECT customer, holder, euros, row_start, row_end FROM credit FOR SYSTEM_TIME ALL ORDER BY customer, row_start
