# Prints for each length of a curve its direct cost, the cost of the time, and the total:
#   pert curve < examples/house.csv | awk -v overhead=90 -v target=30 -v bonus=40 -v penalty=70 -f examples/total.awk
function for_time(units) { return overhead * units + (units > target ? penalty * (units - target) : bonus * (units - target)) }
function row(units, direct) { print units, direct, for_time(units), direct + for_time(units) }
NR > 1 { for (units = last - 1; units > $1; units--) row(units, cost + slope * (last - units)) }
{ row($1, $2); last = $1; cost = $2; slope = $3 }
