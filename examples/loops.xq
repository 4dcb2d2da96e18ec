for $x in (1,2), $y in (10,20)
return $x+$y
