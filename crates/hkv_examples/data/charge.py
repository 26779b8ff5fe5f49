# What sys_charge of charge.c gives, in other words than the code's.

def sys_charge(state, pages, rate):
    return True, state, pages * rate + pages
