for $row in (1,2,3)
return for $column in (10,20,30)
  return ($row, $row+$column)
