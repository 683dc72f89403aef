call first,r31
