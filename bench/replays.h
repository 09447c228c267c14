/* One pass over the fourth table, images that leave: the replay of a trace, and each smaller table read anew; printed if asked. */
void replays(int print);
