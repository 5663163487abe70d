-- The message ?1.
SELECT date, shown FROM message WHERE id = ?1;
