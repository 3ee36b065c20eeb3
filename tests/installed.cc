// A C++ program over the installed library: tags RFC 2202's second message at 1 to 4 shares, in one call and in
// pieces, and ends with 0 where each tag is right. At one share no words are lent, and the vector's pointer is null.
#include <flamivorse.h>
#include <cstdio>
#include <cstring>
#include <random>
#include <vector>

static const unsigned char key[] = {'J', 'e', 'f', 'e'};
static const char message[] = "what do ya want for nothing?";
static const std::size_t length = sizeof message - 1;
static const unsigned char right[FLAMIVORSE_TAG_BYTES] = {0xef, 0xfc, 0xdf, 0x6a, 0xe5, 0xeb, 0x2f, 0xa2, 0xd2, 0x74,
                                                          0x16, 0xd5, 0xf1, 0x84, 0xdf, 0x9c, 0x25, 0x9a, 0x7c, 0x79};

// As many random words as a query asks for.
static std::vector<std::uint32_t> fresh(flamivorse_answer need)
{
    std::random_device source;
    std::vector<std::uint32_t> words(need.drawn);
    for (std::uint32_t &word : words)
        word = static_cast<std::uint32_t>(source());
    return words;
}

static bool tags_right(std::size_t n)
{
    const auto *bytes = reinterpret_cast<const unsigned char *>(message);
    std::vector<std::uint32_t> shares(FLAMIVORSE_KEY_BLOCK_WORDS * n);
    auto words = fresh(flamivorse_split_key_words(n, sizeof key));
    bool done = flamivorse_split_key(n, key, sizeof key, shares.data(), shares.size(), words.data(), words.size())
                    .number == FLAMIVORSE_DONE;

    unsigned char whole[FLAMIVORSE_TAG_BYTES], pieces[FLAMIVORSE_TAG_BYTES];
    words = fresh(flamivorse_hmac_sha1_words(n, length));
    done &= flamivorse_hmac_sha1(n, shares.data(), shares.size(), bytes, length, whole, sizeof whole, words.data(),
                                 words.size()).number == FLAMIVORSE_DONE;

    words = fresh(flamivorse_hmac_sha1_start_words(n));
    flamivorse_streamed stream =
        flamivorse_hmac_sha1_start(n, shares.data(), shares.size(), words.data(), words.size());
    done &= stream.number == FLAMIVORSE_DONE && stream.state.hash == FLAMIVORSE_SHA1;
    stream = flamivorse_hmac_sha1_feed(stream.state, bytes, length, nullptr, 0);    // it fills no block
    stream = flamivorse_hmac_sha1_feed(stream.state, nullptr, 0, nullptr, 0);
    done &= stream.number == FLAMIVORSE_DONE;
    words = fresh(flamivorse_hmac_sha1_finish_words(stream.state));
    stream = flamivorse_hmac_sha1_finish(stream.state, pieces, sizeof pieces, words.data(), words.size());
    done &= stream.number == FLAMIVORSE_DONE;
    flamivorse_clear_stack();
    return done && std::memcmp(whole, right, sizeof right) == 0 && std::memcmp(pieces, right, sizeof right) == 0;
}

int main()
{
    std::printf("flamivorse %s by C++\n", FLAMIVORSE_VERSION);
    for (std::size_t n = 1; n <= 4; n++)
        if (!tags_right(n))
            return 1;
    return flamivorse_hmac_sha1_words(0, length).number == FLAMIVORSE_SHARE_COUNT ? 0 : 1;
}
