# Fits the basic local independence model of the package pks to a class. First, in the shell:
#
#   tools/kst states fractions.txt > states.csv
#   tools/kst patterns class.csv > patterns.csv
#   Rscript blim.R states.csv patterns.csv
#
# The columns of the two files are matched by the names of the items.
files <- commandArgs(trailingOnly = TRUE)
K <- as.matrix(read.csv(files[1], check.names = FALSE))
patterns <- read.csv(files[2], check.names = FALSE)

# How often each response pattern was seen, such as "1010" = 1, in the order of the columns of K.
strings <- apply(patterns[colnames(K)], 1, paste, collapse = "")
N.R <- c(tapply(patterns[[ncol(patterns)]], strings, sum))

library(pks)
fit <- blim(K, N.R, method = "ML")
print(fit)      # how well it fits, and how likely slips (beta) and lucky guesses (eta) are
print(fit$P.K)  # how likely each state is
