# The answers of include/nonthachak.h: number and constant.
/^enum ntk_answer/ { inside = 1 }
inside && /^};/ { inside = 0 }
inside && /^ +NTK_[A-Z_]+ = [0-9]+/ { print $3 + 0, $1 }
