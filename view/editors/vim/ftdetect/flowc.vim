au BufRead,BufNewFile *.chart,*.canonical setfiletype flowchart
au BufRead,BufNewFile *.events setfiletype flowevents
