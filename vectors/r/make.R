# Makes kenward-roger.txt and satterthwaite.txt of this folder: fits by lme4, F and df by pbkrtest and lmerTest.
#
#     Rscript make.R            writes both files into the current folder
#
# Needs R with lme4, pbkrtest, lmerTest and what they bring along (Debian: r-cran-lme4 r-cran-pbkrtest r-cran-lmertest).
# Document 01 names the records; nothing here computes an F or a df of its own. The records of a file rise by kind, then by the count of
# a Jacobian, then by row and column: the order in which `kr_file` and `satt_file` put them together.

suppressMessages({
  library(lme4)
  library(pbkrtest)
  library(lmerTest)
})

# ---- records -------------------------------------------------------------------------------------------------------------------

f64 <- function(x) writeBin(as.double(x), raw(), size = 8, endian = "little")
u32 <- function(x) writeBin(as.integer(x), raw(), size = 4, endian = "little")

# One record of 16 bytes.
record <- function(kind, row = 0, col = 0, count = 0, value = 0, bits = f64(value)) {
  c(as.raw(c(kind, row, col, 0)), u32(count), bits)
}

# All cells of a matrix; of a sparse one the nonzero cells, and one of the last column, so that the number of columns shows.
cells <- function(kind, m, count = 0, sparse = FALSE) {
  m <- as.matrix(m)
  out <- raw(0)
  for (i in seq_len(nrow(m))) for (j in seq_len(ncol(m)))
    if (!sparse || m[i, j] != 0 || (i == 1 && j == ncol(m)))
      out <- c(out, record(kind, i - 1, j - 1, count, m[i, j]))
  out
}

rows <- function(kind, v) {
  out <- raw(0)
  for (i in seq_along(v)) out <- c(out, record(kind, i - 1, value = v[i]))
  out
}

hex <- function(bytes) paste(as.character(bytes), collapse = "")
digits <- function(x) sprintf("%.17g", x)

# The blocks of a fit: lme4's terms in lme4's order, k effects of m groups each. The first of a block's value bytes holds the number of
# its parameters, k(k+1)/2, and the other seven are zero.
blocks <- function(m) {
  k <- lengths(getME(m, "cnms"))
  width <- diff(getME(m, "Gp"))
  out <- raw(0)
  for (i in seq_along(k)) out <- c(out, record(3, i - 1, k[i], width[i] / k[i], bits = c(as.raw(k[i] * (k[i] + 1) / 2), raw(7))))
  out
}

# A Kenward-Roger file. Lme4's Z has its columns block by block, group by group, effect by effect, and its theta runs by
# columns of each lower triangle: both are document 01's order.
kr_file <- function(m, L, beta_h, weights = NULL, X = getME(m, "X"), Z = t(as.matrix(getME(m, "Zt")))) {
  s2 <- sigma(m)^2
  c(cells(1, X), cells(2, Z, sparse = TRUE), blocks(m), rows(4, getME(m, "theta")), if (!is.null(weights)) rows(5, weights),
    cells(6, as.matrix(vcov(m)) / s2), record(7, value = s2), rows(8, fixef(m)), cells(9, L), if (!is.null(beta_h)) rows(10, beta_h))
}

# A Satterthwaite file. The parameters are lmerTest's: theta, then sigma.
satt_file <- function(m, L, beta_h) {
  out <- c(rows(8, m@beta), cells(9, L), if (!is.null(beta_h)) rows(10, beta_h), cells(30, m@vcov_beta))
  for (i in seq_along(m@Jac_list)) out <- c(out, cells(31, m@Jac_list[[i]], count = i - 1))
  c(out, cells(32, m@vcov_varpar))
}

# ---- the packages' answers -----------------------------------------------------------------------------------------------------

# One entry: its index in the answer, rank, F, df.
entry <- function(index, rank, f, df) paste(index, rank, digits(f), digits(df))

kr_entry <- function(index, m, L, beta_h = 0) {
  test <- KRmodcomp(m, L, betaH = beta_h)$stats
  entry(index, test$ndf, test$Fstat, test$ddf)
}

# Each coefficient alone, then the contrast.
kr_entries <- function(m, L, beta_h) {
  p <- length(fixef(m))
  alone <- vapply(seq_len(p), function(i) kr_entry(i - 1, m, diag(p)[i, , drop = FALSE]), "")
  paste(c(alone, kr_entry(6, m, L, if (is.null(beta_h)) 0 else beta_h)), collapse = " ")
}

satt_entries <- function(m, L, beta_h) {
  rhs <- if (is.null(beta_h)) rep(0, nrow(L)) else drop(L %*% beta_h)
  if (nrow(L) == 1) {
    test <- contest1D(m, drop(L), rhs = rhs, ddf = "Satterthwaite")
    entry(0, 1, test[["t value"]]^2, test[["df"]])
  } else {
    test <- contestMD(m, L, rhs = rhs, ddf = "Satterthwaite")
    entry(0, test[["NumDF"]], test[["F value"]], test[["DenDF"]])
  }
}

# ---- the files -----------------------------------------------------------------------------------------------------------------

kr_lines <- character(0)
satt_lines <- character(0)

# The comment above a case.
said <- function(m, L, note) {
  text <- paste(deparse(formula(m), width.cutoff = 500), collapse = " ")
  theta <- paste(signif(getME(m, "theta"), 3), collapse = " ")
  paste0("# ", text, "; n ", nobs(m), "; theta ", theta, "; contrast rows ", nrow(L), if (nzchar(note)) paste0("; ", note))
}

put_kr <- function(name, m, L, beta_h = NULL, verdict = "holds", note = "", entries = kr_entries(m, L, beta_h), ...) {
  stopifnot(isREML(m), nobs(m) <= 24, length(fixef(m)) <= 6, !grepl(" ", name))
  kr_lines <<- c(kr_lines, said(m, L, note), paste(name, verdict, hex(kr_file(m, L, beta_h, ...)), entries))
}

put_satt <- function(name, m, L, beta_h = NULL, verdict = "holds", note = "") {
  stopifnot(isREML(m), !grepl(" ", name))
  satt_lines <<- c(satt_lines, said(m, L, note), paste(name, verdict, hex(satt_file(m, L, beta_h)), satt_entries(m, L, beta_h)))
}

# REML fits, with a tight tolerance, so that lmerTest takes its second derivatives at the minimum.
fit <- function(formula, data, weights = NULL) {
  control <- lmerControl(optimizer = "bobyqa", optCtrl = list(rhoend = 1e-10), check.conv.singular = "ignore")
  environment(formula) <- environment()
  data <- droplevels(as.data.frame(data))
  data$prior <- if (is.null(weights)) rep(1, nrow(data)) else weights
  if (is.null(weights)) lmerTest::lmer(formula, data, control = control) else lmerTest::lmer(formula, data, weights = prior, control = control)
}

# Both files: the contrast, and for Satterthwaite also its first row.
put <- function(name, m, L, beta_h = NULL, ...) {
  put_kr(name, m, L, beta_h, ...)
  put_satt(name, m, L, beta_h, ...)
  if (nrow(L) > 1) put_satt(paste0(name, "-row-0"), m, L[1, , drop = FALSE], beta_h, ...)
}

# Contrasts: some coefficients, each tested against 0; all but the first; one row.
some <- function(m, which) diag(length(fixef(m)))[which, , drop = FALSE]
all_but_first <- function(m) some(m, -1)
one_row <- function(...) matrix(c(...), nrow = 1)

# The levels of a factor, by number.
of <- function(f, which) f %in% levels(f)[which]

# Pbkrtest ignores prior weights. Three files of one weighted fit:
# - the weights in the file, pbkrtest's numbers: differs by design;
# - the weights left out, Phi as fitted with them, which is what pbkrtest computes with: holds;
# - the weights in the file, and pbkrtest's numbers for the same model without weights, all its rows (response, X, Z) multiplied by
#   the root of their weight (formula "rooted", whose columns are named x1 .., the response y, the root r): holds.
put_weighted <- function(name, m, rooted, L, beta_h = NULL) {
  w <- weights(m)
  Z <- t(as.matrix(getME(m, "Zt")))
  put_kr(paste0(name, "-ignored"), m, L, beta_h, verdict = "differs:weights", weights = w)
  put_kr(paste0(name, "-left-out"), m, L, beta_h, note = "weights left out of the file")
  data <- model.frame(m)
  X <- getME(m, "X")
  data$r <- sqrt(w)
  data$y <- data$r * getME(m, "y")
  for (i in seq_len(ncol(X))) data[[paste0("x", i)]] <- data$r * X[, i]
  put_kr(name, fit(rooted, data), L, beta_h, note = "rows multiplied by the roots of the weights", weights = w, X = X, Z = Z)
  put_satt(name, m, L, beta_h)
}

# ---- sleepstudy (lme4) ---------------------------------------------------------------------------------------------------------

data(sleepstudy, package = "lme4")
m <- fit(Reaction ~ Days + (1 | Subject), subset(sleepstudy, of(Subject, 1:4) & Days < 6))
put("sleepstudy", m, one_row(0, 1))
m <- fit(Reaction ~ Days + (1 | Subject) + (0 + Days | Subject), subset(sleepstudy, of(Subject, c(1, 3, 8, 10, 11, 16)) & Days %in% c(0, 3, 6, 9)))
put("sleepstudy-slope-apart", m, one_row(0, 1), c(0, 10))
m <- fit(Reaction ~ Days + (1 | Subject) + (0 + Days | Subject), subset(sleepstudy, of(Subject, c(3, 7, 12, 14, 15, 18)) & Days %in% c(0, 3, 6, 9))[-c(2, 7, 12), ])
put("sleepstudy-slope-apart-unbalanced", m, diag(2), c(250, 5))
few <- subset(sleepstudy, of(Subject, c(1, 2, 4, 7, 13, 17)) & Days %in% c(0, 3, 6, 9))
m <- fit(Reaction ~ Days + (1 + Days | Subject), few)
put("sleepstudy-slope", m, one_row(0, 1))
m <- fit(Reaction ~ Days + (1 + Days | Subject), subset(sleepstudy, of(Subject, c(1, 2, 4, 7, 9, 13, 14, 17)) & Days %in% c(0, 4, 8)))
put("sleepstudy-slope-two-rows", m, diag(2), c(250, 10))
put_kr("sleepstudy-slope-three-rows", m, rbind(c(1, 0), c(1, 3), c(1, 6)), note = "three rows of rank 2")
m <- fit(Reaction ~ Days + (1 + Days | Subject), subset(sleepstudy, of(Subject, c(4, 7, 8, 9, 14, 16)) & Days %% 2 == 0)[-c(1, 7, 12, 13, 16, 22, 29), ])
put("sleepstudy-slope-unbalanced", m, one_row(1, 5), c(300, 0))
m <- fit(Reaction ~ Days + (1 + Days | Subject), subset(sleepstudy, of(Subject, 11:16) & Days %% 2 == 0)[-c(2, 7, 8, 13, 19, 25, 30), ])
put("sleepstudy-slope-at-bound", m, one_row(0, 1))
m <- fit(Reaction ~ Days + I(Days^2) + (1 | Subject), subset(sleepstudy, of(Subject, c(2, 4, 8)) & Days < 8))
put("sleepstudy-quadratic", m, all_but_first(m))
m <- fit(Reaction ~ Days + (0 + Days | Subject), subset(sleepstudy, of(Subject, 1:5))[c(1:4, 12:16, 22:23, 31:38, 41:45), ])
put("sleepstudy-slope-alone", m, one_row(1, -1))

# ---- cake (lme4) ---------------------------------------------------------------------------------------------------------------

data(cake, package = "lme4")
m <- fit(angle ~ recipe + temp + (1 | replicate), subset(cake, replicate %in% 1:4 & temp %in% c(175, 205)))
put("cake-recipe", m, some(m, 2:3))
m <- fit(angle ~ recipe * temp + (1 | replicate), subset(cake, replicate %in% c(2, 7, 11, 15) & temp %in% c(185, 225)))
put("cake-interaction", m, some(m, 5:6))
m <- fit(angle ~ recipe + temp + (1 | replicate) + (1 | recipe:replicate), subset(cake, replicate %in% c(3, 6, 9, 12) & recipe %in% c("A", "C") & temp %in% c(175, 195, 215)))
put("cake-nested", m, all_but_first(m))
put_kr("cake-nested-dependent-rows", m, rbind(c(0, 1, 0), c(0, 0, 1), c(0, 1, 1)), note = "the third row is the sum of the others")
m <- fit(angle ~ I((temp - 200) / 10) + (1 + I((temp - 200) / 10) | replicate), subset(cake, replicate %in% c(1, 4, 8, 13) & recipe == "B"))
put("cake-slope", m, one_row(0, 1))
m <- fit(angle ~ temperature + (1 | recipe:replicate), subset(cake, replicate %in% c(5, 10) & recipe != "B"))
put("cake-temperature", m, all_but_first(m))

# ---- Dyestuff, Dyestuff2, Penicillin, Pastes (lme4) ----------------------------------------------------------------------------

data(Dyestuff, package = "lme4")
data(Dyestuff2, package = "lme4")
data(Penicillin, package = "lme4")
data(Pastes, package = "lme4")
m <- fit(Yield ~ 1 + (1 | Batch), Dyestuff[1:24, ])
put("dyestuff", m, one_row(1), 1500)
m <- fit(Yield ~ 1 + (1 | Batch), Dyestuff[c(1:3, 6:10, 11:12, 16:20, 21, 26:30), ])
put("dyestuff-unbalanced", m, one_row(-2), 1450)
m <- fit(Yield ~ 1 + (1 | Batch), Dyestuff2[c(1:4, 6:9, 11:14, 16:19, 21:24, 26:29), ])
put_kr("dyestuff2", m, one_row(1), 5)
m <- fit(diameter ~ 1 + (1 | plate) + (1 | sample), subset(Penicillin, plate %in% letters[1:4]))
put("penicillin", m, one_row(1), 23)
m <- fit(diameter ~ 1 + (1 | plate) + (1 | sample), subset(Penicillin, plate %in% letters[7:13])[-c(2, 3, 5, 9, 10, 14, 17, 18, 20, 23, 27, 29, 30, 34, 35, 36, 38, 41), ])
put("penicillin-unbalanced", m, one_row(1), 20)
m <- fit(strength ~ 1 + (1 | batch) + (1 | sample), subset(Pastes, batch %in% c("C", "E", "H", "I")))
put("pastes-nested", m, one_row(1), 60)
m <- fit(strength ~ cask + (1 | batch), subset(Pastes, batch %in% c("E", "F", "G", "H")))
put("pastes-cask", m, all_but_first(m))
m <- fit(strength ~ cask + (1 | batch) + (1 | sample), subset(Pastes, batch %in% c("B", "D", "F", "H", "J"))[-c(3, 8, 12, 13, 19, 26), ])
put("pastes-cask-nested", m, all_but_first(m), c(60, 1, 0))

# ---- cbpp, Arabidopsis, grouseticks, InstEval, VerbAgg (lme4) ------------------------------------------------------------------

data(cbpp, package = "lme4")
data(Arabidopsis, package = "lme4")
data(grouseticks, package = "lme4")
data(InstEval, package = "lme4")
data(VerbAgg, package = "lme4")
cbpp$rate <- cbpp$incidence / cbpp$size
m <- fit(rate ~ period + (1 | herd), subset(cbpp, herd %in% c(1, 4, 7, 9, 10, 13)))
put("cbpp", m, all_but_first(m))
m <- fit(log(total.fruits + 1) ~ nutrient + amd + (1 | popu), subset(Arabidopsis, reg == "NL")[seq(5, 115, 5), ])
put("arabidopsis", m, all_but_first(m))
m <- fit(log(TICKS + 1) ~ YEAR + cHEIGHT + (1 | BROOD), grouseticks[c(1:9, 130:137, 301:307), ])
put("grouseticks", m, some(m, 2:3))
busy <- names(sort(table(InstEval$d), decreasing = TRUE))[1:3]
m <- fit(y ~ service + (1 | d) + (1 | studage), subset(InstEval, d %in% busy)[seq(10, 240, 10), ])
put("insteval", m, one_row(0, 1))
VerbAgg$level <- as.numeric(VerbAgg$resp)
m <- fit(level ~ btype + mode + (1 | id) + (1 | item), subset(VerbAgg, id %in% c(15, 56, 69, 225) & of(item, c(1, 2, 3, 13, 14, 15))))
put("verbagg", m, some(m, 4))

# ---- beets, budworm (pbkrtest) -------------------------------------------------------------------------------------------------

data(beets, package = "pbkrtest")
data(budworm, package = "pbkrtest")
m <- fit(sugpct ~ sow + harvest + (1 | block:harvest), subset(beets, sow != "sow5"))
put("beets-sow", m, some(m, 2:4))
m <- fit(sugpct ~ sow + harvest + (1 | block:harvest), subset(beets, sow != "sow1"))
put("beets-harvest", m, some(m, 5))
m <- fit(yield ~ sow + block + (1 | block:harvest), subset(beets, sow != "sow3"))
put("beets-block", m, some(m, 5:6))
m <- fit(yield ~ block + (1 | block:harvest), subset(beets, !(block == "block3" & harvest == "harv1") & !(block == "block1" & harvest == "harv2")))
put("beets-four-plots", m, all_but_first(m), note = "Satterthwaite: both components have df 1")
m <- fit(yield ~ sow + harvest + (1 | block) + (1 | block:harvest), subset(beets, sow != "sow2")[-c(3, 11, 20), ])
put("beets-nested-unbalanced", m, all_but_first(m))
budworm$logit <- qlogis((budworm$ndead + 0.5) / (budworm$ntotal + 1))
budworm$group <- factor(budworm$dose)
m <- fit(logit ~ sex + log2(dose) + (1 | group), budworm)
put("budworm", m, all_but_first(m))
m <- fit(logit ~ sex + (1 | group), budworm)
put("budworm-sex", m, some(m, 2))

# ---- carrots, ham, TVbo (lmerTest) ---------------------------------------------------------------------------------------------

data(carrots, package = "lmerTest")
data(ham, package = "lmerTest")
data(TVbo, package = "lmerTest")
m <- fit(Preference ~ sens1 + sens2 + (1 | Consumer), subset(carrots, of(Consumer, c(4, 9, 20, 31)))[seq(1, 48, 2), ])
put("carrots", m, all_but_first(m))
m <- fit(Preference ~ sens1 + sens2 + (1 | Consumer) + (1 | Product), subset(carrots, of(Consumer, c(10, 24, 32, 79)) & of(Product, c(4, 5, 6, 7, 11, 12))))
put("carrots-crossed", m, all_but_first(m))
m <- fit(Preference ~ sens2 + (1 + sens2 | Consumer), subset(carrots, of(Consumer, c(3, 19, 33, 51, 52, 96)) & of(Product, c(1, 4, 5, 8))))
put("carrots-slope", m, one_row(0, 1))
m <- fit(Preference ~ sens2 + (1 | Consumer) + (0 + sens2 | Consumer) + (1 | Product), subset(carrots, of(Consumer, c(34, 52, 88, 102)) & of(Product, c(2, 3, 4, 8, 11, 12))))
put("carrots-three-blocks", m, one_row(0, 1))
m <- fit(Informed.liking ~ Product + Information + (1 | Consumer), subset(ham, Consumer %in% c(5, 21, 33)))
put("ham", m, all_but_first(m))
m <- fit(Informed.liking ~ Product + Information + (1 | Consumer) + (1 | Consumer:Product), subset(ham, Consumer %in% c(36, 62, 69)))
put("ham-nested", m, some(m, 2:4))
m <- fit(Informed.liking ~ Information + Gender + (1 | Consumer) + (1 | Product) + (1 | Consumer:Product), subset(ham, Consumer %in% c(12, 31, 69)))
put("ham-three-factors", m, all_but_first(m))
m <- fit(Coloursaturation ~ TVset * Picture + (1 | Assessor), subset(TVbo, Assessor %in% 1:4 & Picture %in% c(1, 3) & Repeat == 0))
put("tvbo-interaction", m, some(m, 5:6))
m <- fit(Colourbalance ~ TVset + Picture + (1 | Assessor) + (1 | Assessor:TVset), subset(TVbo, Assessor %in% c(1, 5, 7, 8) & Picture %in% c(2, 4) & Repeat == 1))
put("tvbo-nested", m, all_but_first(m))
m <- fit(Noise ~ TVset + (1 | Assessor) + (1 | Assessor:TVset) + (1 | Picture), subset(TVbo, Assessor %in% c(2, 3, 5, 8) & Picture %in% c(1, 4) & Repeat == 1))
put("tvbo-three-factors", m, all_but_first(m))

# ---- npk, ChickWeight, Orange (datasets), oats (MASS) --------------------------------------------------------------------------

data(oats, package = "MASS")
m <- fit(yield ~ N * P + K + N:K + (1 | block), npk)
put("npk", m, some(m, 5:6))
m <- fit(weight ~ Time + (1 + Time | Chick), subset(ChickWeight, Chick %in% c(1, 19, 23, 30, 41, 42) & Time %in% c(4, 10, 16, 21)))
put("chickweight-slope", m, one_row(0, 1))
m <- fit(circumference ~ age + (1 | Tree), Orange[c(1:4, 8:13, 15:16, 22:27, 30:35), ])
put("orange", m, one_row(0, 1))
m <- fit(Y ~ N + V + (1 | B) + (1 | B:V), subset(oats, of(B, c(2, 5, 6)) & of(V, 1:2)))
put("oats-split-plot", m, some(m, 2:4))

# ---- weights -------------------------------------------------------------------------------------------------------------------

herds <- subset(cbpp, herd %in% c(1, 4, 7, 9, 10, 13))
m <- fit(rate ~ period + (1 | herd), herds, weights = herds$size)
put_weighted("cbpp-weights", m, y ~ 0 + x1 + x2 + x3 + x4 + (0 + r | herd), all_but_first(m))
m <- fit(Reaction ~ Days + (1 + Days | Subject), few, weights = 1 / (1 + few$Days))
put_weighted("sleepstudy-weights", m, y ~ 0 + x1 + x2 + (0 + x1 + x2 | Subject), one_row(0, 1), c(0, 5))
casks <- subset(Pastes, batch %in% c("A", "B", "F", "H"))
m <- fit(strength ~ cask + (1 | batch) + (1 | sample), casks, weights = c(a = 1, b = 2, c = 4)[as.character(casks$cask)])
put_weighted("pastes-weights", m, y ~ 0 + x1 + x2 + x3 + (0 + r | batch) + (0 + r | sample), all_but_first(m))

# ---- Kenward-Roger: differs by design ------------------------------------------------------------------------------------------

# One fit in several units (Reaction is in ms). Pbkrtest looks at IE's smallest eigenvalue in the units of the response, the panel in
# residual units, where the unit of the covariate alone matters.
few <- transform(few, hours = 24 * Days, decades = Days / 3652.5, microseconds = 1000 * Reaction, seconds = Reaction / 1000)
m <- fit(microseconds ~ Days + (1 + Days | Subject), few)
put_kr("units-microseconds-days", m, one_row(0, 1), note = "pbkrtest's pseudo-inverse is the inverse here")
m <- fit(microseconds ~ hours + (1 + hours | Subject), few)
put_kr("units-microseconds-hours", m, one_row(0, 1), verdict = "differs:inverse", note = "pbkrtest's pseudo-inverse drops a direction")
m <- fit(seconds ~ decades + (1 + decades | Subject), few)
put_kr("units-seconds-decades", m, one_row(0, 1), verdict = "differs:inverse", note = "1e-8 joins the panel's diagonal")
m <- fit(Reaction ~ Days + (1 | Subject) + (1 | again), transform(few, again = Subject))
put_kr("factor-twice", m, diag(2), verdict = "differs:inverse", note = "IE is singular")
# Several rows: the contrast alone differs, the coefficients hold. First balanced designs whose exact df is 4 and 2, then one with too
# few specimens for so many rows.
put_rows <- function(name, why, m, L) {
  put_kr(name, m, L[1, , drop = FALSE])
  put_kr(paste0(name, "-", why), m, L, verdict = paste0("differs:", why), entries = kr_entry(6, m, L))
}
m <- fit(Reaction ~ Days + (1 + Days | Subject), few)
put_rows("sleepstudy-rows", "df-4", m, diag(2))
m <- fit(level ~ btype + mode + (1 | id) + (1 | item), subset(VerbAgg, id %in% c(3, 4, 6, 7) & of(item, c(1, 2, 3, 13, 14, 15))))
put_rows("verbagg-rows", "df-2", m, all_but_first(m))
m <- fit(Noise ~ TVset + Picture + (1 | Assessor) + (1 | Assessor:TVset), subset(TVbo, Assessor %in% c(2, 5, 7, 8))[c(4, 19, 25, 27, 42, 47, 62, 64, 65, 68, 77, 94), ])
put_rows("tvbo-rows", "df-negative", m, all_but_first(m))

# ---- Satterthwaite: whole data sets (its file has no n) ------------------------------------------------------------------------

m <- fit(Reaction ~ Days + (1 + Days | Subject), sleepstudy)
put_satt("whole-sleepstudy", m, one_row(0, 1))
put_satt("whole-sleepstudy-both", m, diag(2), c(250, 10))
m <- fit(angle ~ recipe * temp + (1 | recipe:replicate), cake)
put_satt("whole-cake", m, all_but_first(m))
m <- fit(angle ~ temperature + (1 | replicate) + (1 | recipe:replicate), cake)
put_satt("whole-cake-temperature", m, all_but_first(m))
m <- fit(strength ~ 1 + (1 | batch) + (1 | sample), Pastes)
put_satt("whole-pastes", m, one_row(1), 60)
m <- fit(diameter ~ 1 + (1 | plate) + (1 | sample), Penicillin)
put_satt("whole-penicillin", m, one_row(1), 23)
m <- fit(sugpct ~ sow + harvest + (1 | block:harvest), beets)
put_satt("whole-beets", m, some(m, 2:5))
m <- fit(Preference ~ sens1 + sens2 + Homesize + (1 | Consumer) + (0 + sens2 | Consumer) + (1 | Product), carrots)
put_satt("whole-carrots", m, all_but_first(m))
m <- fit(Informed.liking ~ Product + Information + (1 | Consumer) + (1 | Consumer:Product), ham)
put_satt("whole-ham", m, all_but_first(m))
m <- fit(Coloursaturation ~ TVset + Picture + (1 | Assessor) + (1 | Assessor:TVset) + (1 | Assessor:Picture), TVbo)
put_satt("whole-tvbo", m, all_but_first(m))
put_satt("whole-tvbo-dependent-rows", m, rbind(some(m, 2:3), c(0, 1, -1, 0, 0, 0)), verdict = "differs:rows", note = "the third row is the difference of the others")
m <- fit(rate ~ period + (1 | herd), cbpp, weights = cbpp$size)
put_satt("whole-cbpp-weights", m, all_but_first(m))
m <- fit(log(TICKS + 1) ~ YEAR + cHEIGHT + (1 | BROOD) + (1 | LOCATION), grouseticks)
put_satt("whole-grouseticks", m, all_but_first(m))
m <- fit(level ~ btype + mode + Anger + (1 | id) + (1 | item), VerbAgg)
put_satt("whole-verbagg", m, all_but_first(m))
m <- fit(y ~ service + studage + (1 | s) + (1 | d), subset(InstEval, dept %in% c(2, 5, 6, 10)))
put_satt("four-departments-insteval", m, some(m, 2), note = "one row, so no cap")
put_satt("four-departments-insteval-cap", m, all_but_first(m), verdict = "differs:cap")

# ---- writing -------------------------------------------------------------------------------------------------------------------

version <- function(name) as.character(packageVersion(name))
made <- paste0("# Made by `Rscript make.R`: R ", getRversion(), ", lme4 ", version("lme4"), ", pbkrtest ", version("pbkrtest"),
               ", lmerTest ", version("lmerTest"), ", LAPACK ", La_version(), ".")
format <- "# A line: name, `holds` or `differs:WHY`, the record file in hexadecimal, then for each entry of the answer its index, rank, F and df."

writeLines(c("# Outside vectors for the Kenward-Roger call: REML fits by lme4; F (scaled) and df by pbkrtest's KRmodcomp.", made, format,
             "# Entries 0 to 5 are the coefficients, each alone against 0, and 6 is the contrast.",
             "# weights: pbkrtest ignores prior weights in Sigma and its parts.",
             "# inverse: the smallest eigenvalue of IE is at most 1e-10 (by pbkrtest in the data's units, which then takes a pseudo-inverse; in",
             "#   the panel in residual units, where then 1e-8 joins the diagonal).",
             "# df-4: V2 = 0 but for rounding; pbkrtest divides by it, and its df is 4; the panel's quotient is then 0, and it has no df.",
             "# df-2: V1 = 0 and 1 - a2/q = 0 but for rounding; pbkrtest takes their quotient to be 1; the panel 0, and it has no df.",
             "# df-negative: pbkrtest's df is negative; the panel has none.", kr_lines), "kenward-roger.txt")
writeLines(c("# Outside vectors for the Satterthwaite call: REML fits by lme4; F and df by lmerTest's contest1D and contestMD.", made, format,
             "# rows: lmerTest reduces dependent rows; the panel expects them reduced.",
             "# cap: the panel caps the df of a component at 3000 where there are several rows.", satt_lines), "satterthwaite.txt")
