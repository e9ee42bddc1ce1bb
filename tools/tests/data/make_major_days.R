# Writes major_days_r.csv: thresholds of the series in major_days.csv, worked out by R in place of the tools.
#
#     Rscript tools/tests/data/make_major_days.R tools/tests/data/major_days.csv > tools/tests/data/major_days_r.csv
series <- read.csv(commandArgs(trailingOnly = TRUE)[1], stringsAsFactors = FALSE)
series$minutes <- series$seconds / 60 / series$served
cat("case,days,alpha,beta,t_med,above\n")
for (case in unique(series$case)) {
    own <- series[series$case == case, ]
    last <- max(own$period)
    before <- own[own$period < last & own$period >= last - 5 & own$minutes > 0, ]
    logarithms <- log(before$minutes)
    if (length(logarithms) < 2) {
        cat(sprintf("%s,%d,,,,\n", case, length(logarithms)))
        next
    }
    threshold <- exp(mean(logarithms) + 2.5 * sd(logarithms))
    above <- own$day[own$period == last & own$minutes > threshold]
    cat(sprintf("%s,%d,%.15g,%.15g,%.15g,%s\n", case, length(logarithms), mean(logarithms), sd(logarithms), threshold,
                paste(above, collapse = " ")))
}
