 * no comment
