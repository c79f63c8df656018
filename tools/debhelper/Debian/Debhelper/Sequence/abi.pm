#!/usr/bin/perl
# Enables dh_abi, while the libraries still have their debug information, which dh_strip removes, and have it as it is shipped: dh_dwz
# came before. All other files are in place by then.

use strict;
use warnings;

insert_before('dh_strip', 'dh_abi');

1;
