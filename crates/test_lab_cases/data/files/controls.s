halt
halt
