# A rec file of n megabytes: 12,000 records of four short fields in each.
#     awk -f records.awk -v megabytes=10
BEGIN {
    for (i = 0; i < 12000 * megabytes; i++)
        printf "Id: %d\nName: reader %d\nTown: Springfield %d\nMail: r%d@example.org\n\n", 1000000 + i, i, i % 1000, i
}
