slothy_start:
        add x<a>, x0, x1
        add x<b>, x0, x2
        add x<c>, x0, x3
        madd x4, x<a>, x<b>, x<c>
slothy_end:
