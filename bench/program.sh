# What each script that runs `rds` as a whole reads at the top of the repository: PROGRAM is RDS, or crates/rds/out/rds, which is built where
# that isn't done.
PROGRAM=${RDS:-crates/rds/out/rds}
[ -x "$PROGRAM" ] || (cd crates/rds && rt run -- play < ../../examples/hello.rds > /dev/null) || exit 1
