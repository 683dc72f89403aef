nopnop
