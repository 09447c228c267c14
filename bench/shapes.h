/* One pass over the second table, the measured reading on tables of every shape; printed if asked. */
void shapes(int print);
