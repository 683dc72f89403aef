        jr   r31        ; never set
