* only one return is passed over

